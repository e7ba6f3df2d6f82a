# SPDX-License-Identifier: MIT OR Apache-2.0
"""The version of the release that this package belongs to. release/generate.py writes it from CHANGELOG.md."""

VERSION = "0.8.0"
