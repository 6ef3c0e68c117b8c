"""Reports for people and CI over a record of `race-record`: text, json, sarif, github, html."""

VERSION = "2"
