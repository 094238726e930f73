"""The resident process around the mail filter: spool, users, due runs and delivery.

`service/tapestryd` starts it, and `service/tap` speaks to it. This module has the names that both share.
"""

from __future__ import annotations

#: The environment variable that names the filter's program.
PROGRAM_VARIABLE = "TAPESTRY"

#: The environment variable that names the socket for clients.
SOCKET_VARIABLE = "TAPESTRY_SOCKET"

#: The socket of the service that a package installs.
DEFAULT_SOCKET = "/run/tapestry/socket"
