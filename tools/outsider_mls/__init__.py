"""An outsider of an MLS group (RFC 9420) under cipher suite 0x0001, written from the standard and no code here."""
