"""Tests of the page that `make page` builds, in a browser, which opens it from the disk.

`.ci/check_playground` runs them: PAGE names the page, ERTIME and ERTAUDIT the programs with which it is compared, and
Selenium drives Debian's Chromium.
"""
