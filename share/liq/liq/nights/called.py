"""An address that is called when a night is there, so that somebody notices where none is."""
import http.client
import time
import urllib.error
import urllib.request
from typing import Optional

SECONDS, TRIES, PAUSE = 10, 3, 2


def why_not(address: str) -> Optional[str]:
    """Calls an address; why that was not possible, or nothing."""
    why = ""
    for number in range(TRIES):
        if number:
            time.sleep(PAUSE)
        try:
            with urllib.request.urlopen(urllib.request.Request(address, headers={"User-Agent": "liq"}), timeout=SECONDS) as answer:
                answer.read(1024)
            return None
        except urllib.error.HTTPError as error:
            why = f"it answers {error.code}"
        except (OSError, ValueError, http.client.HTTPException) as error:
            why = str(getattr(error, "reason", "") or error) or "no answer"
    return why
