// A stand-in, not a published file: execution is not at hand and not needed.
