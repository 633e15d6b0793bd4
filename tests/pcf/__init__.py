"""PCF fonts as the tests write them (tables), read them (reading), change their bytes (rewriting), lay out their rows in
every order (orders) and make twins of them, which 000 reads as the port does (twins); and font F of document 01
(font_f)."""
