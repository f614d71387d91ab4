"""The short name of `cdma_model` at the top of a checkout: `python3 -m model`. An installation does not contain it."""
