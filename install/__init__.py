"""Installs wcc below a prefix, and takes it away again."""
