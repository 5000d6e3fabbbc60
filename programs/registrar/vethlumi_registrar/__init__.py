"""The registrar of an SSH certificate office: a login at an identity provider, or a workload's token, becomes a message
to the office. It keeps nothing on disk."""
