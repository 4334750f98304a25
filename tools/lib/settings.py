"""The secret of the servers of this machine, and the tokens by which it vouches for users."""
import hashlib
import hmac
import os
import re

PATH = "/etc/default/couchd"


def setting_of(name: str) -> str:
    """Returns a setting: that of the variable, else that of the package's file, or nothing where it can't be read."""
    if os.environ.get(name):
        return os.environ[name]
    try:
        with open(PATH, encoding="utf-8") as file:
            found = re.search(rf"(?m)^{name}=[\"']?([^\"'\n]*)", file.read())
    except OSError:
        return ""
    return found[1] if found else ""


def token_of(secret: str, user: str) -> str:
    """Returns the token that vouches for a user: the lower-case hex HMAC-SHA-256 of the name under the secret."""
    return hmac.new(secret.encode(), user.encode(), hashlib.sha256).hexdigest()
