"""What .ci/pages checks, a module for each kind of statement."""
