"""From a C file to a tuned, checked image: what `./wcc build` and `./wcc tune` do, and what other tools use of it."""
