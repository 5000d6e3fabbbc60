"""The client of an SSH certificate office: asks for certificates, revokes them, and looks at what the office has."""

# That of debian/changelog.
__version__ = "1.0.0"
