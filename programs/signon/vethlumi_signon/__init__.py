"""What the registrar and the witness beside a station's guard have in common: tokens, who gets what by them, and the
issuers whose keys sign them."""
