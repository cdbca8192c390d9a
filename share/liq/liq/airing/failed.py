"""Why there is nothing on the air."""
from liq.failed import Failed

__all__ = ["Failed"]
