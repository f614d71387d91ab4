"""Cases for receivers: what the model makes of a case of conformance/, and cases drawn from a number."""
