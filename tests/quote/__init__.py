"""Tests of ./quote, a file for each subject. Run: python3 tests/test_quote.py"""
