"""From a file's bytes to rows of cells, as spreadsheets save them."""

import csv
import io
import os
import sys

from quoting.faults import InputError, told

SEPARATORS = {',': 'comma', ';': 'semicolon', '\t': 'tab'}
LARGEST = 16 * 1024 * 1024
STANDARD_INPUT = '-'
# A note may be as long as a file.
csv.field_size_limit(LARGEST)


def load(path):
    """The bytes of a file, or of standard input."""
    if path == STANDARD_INPUT:
        if sys.stdin is None:
            raise InputError('it is closed')
        return limited(sys.stdin.buffer)
    if not path:
        raise InputError('the name of a tray is empty; give a CSV file')
    try:
        with open(path, 'rb') as file:
            return limited(file)
    except IsADirectoryError:
        raise InputError('this is a folder; give a CSV file')
    except (OSError, ValueError) as error:
        raise InputError('cannot be read: %s' % (getattr(error, 'strerror', None) or error))


def limited(file):
    data = file.read(LARGEST + 1)
    if len(data) > LARGEST:
        raise InputError('larger than %d megabytes: not a tray' % (LARGEST // 1024 // 1024))
    return data


def name_of(path):
    """What a file is called in what is printed; a name may hold any character."""
    name = 'standard input' if path == STANDARD_INPUT else os.fspath(path)
    return ''.join(c if c.isprintable() or 0xdc80 <= ord(c) <= 0xdcff else '?' for c in name)


def text_of(data):
    """The characters of a file. Only unread cells may hold a character that cannot be told."""
    if data.startswith(b'PK\x03\x04') or data.startswith(b'\xd0\xcf\x11\xe0'):
        raise InputError('this is a workbook; save the sheet as CSV and give that file')
    if data.startswith((b'\xff\xfe', b'\xfe\xff')):
        try:
            return data.decode('utf-16')
        except UnicodeDecodeError:
            raise InputError('this is not a text file; save the sheet as CSV and give that file')
    if b'\0' in data:
        raise InputError('this is not a text file; save the sheet as CSV and give that file')
    return data.decode('utf-8-sig', 'replace')


def declared(text):
    """A first line 'sep=;' names the separator. It is left as a blank line, so that the others keep their numbers."""
    end = min((i for i in (text.find('\r'), text.find('\n')) if i >= 0), default=len(text))
    first = text[:end].strip(' "')
    if len(first) == 5 and first.lower().startswith('sep='):
        if first[4] not in SEPARATORS:
            raise InputError('line 1: the separator is %s; it must be a comma, a semicolon or a tab' % told(first[4]))
        return first[4], text[end:]
    return None, text


def separator_of(text, names_in):
    """The separator that takes the header apart into the most column names."""
    best, most = ',', 0
    for separator in SEPARATORS:
        reader = csv.reader(io.StringIO(text, newline=''), delimiter=separator)
        try:
            count = next((n for n in map(names_in, reader) if n), 0)
        except csv.Error:
            count = 0
        if count > most:
            best, most = separator, count
    return best


def rows_of(text, separator):
    """Each row that has a cell with something in it, with its line."""
    reader = csv.reader(io.StringIO(text, newline=''), delimiter=separator, strict=True)
    rows, line = [], 1
    try:
        for cells in reader:
            cells = [c.strip() for c in cells]
            if reader.line_num > line:
                raise InputError('line %d: a cell runs on to line %d; is a quotation mark not closed?' % (line, reader.line_num))
            if any(cells):
                rows.append((line, cells))
            line = reader.line_num + 1
    except csv.Error as error:
        raise InputError('line %d: the quotation marks around a cell do not match (%s)' % (line, error))
    return rows


def read(data, names_in):
    """The rows of a file with their lines, and the separator between cells."""
    separator, text = declared(text_of(data))
    separator = separator or separator_of(text, names_in)
    rows = rows_of(text, separator)
    if not rows:
        raise InputError('the file is empty')
    return rows, separator
