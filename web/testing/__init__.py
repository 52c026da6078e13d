"""What web/test is made of: a machine of its own, a browser, and the checks by subject."""
