"""The signing station. `command` has its help, `rounds` what it does; each other module has one of its parts."""
