"""The page of liq-try: a station in the browser while it is written."""
