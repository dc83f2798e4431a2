"""The quote command: a tray in, volatilities and a surface out. The numbers are the blotter program's."""

# That of the Rust crate in hosts/rust too.
VERSION = '0.1.0'
