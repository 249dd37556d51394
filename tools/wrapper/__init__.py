"""What bin/pse52 is made of, in sh; here for its tests."""
