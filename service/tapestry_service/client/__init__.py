"""The client for people: one command of `tap` over the daemon's socket."""
