"""From any GNU make project to a verdict: one recorded build, read by these modules, judged by `race`."""

VERSION = "1"  # of records
RELEASE = "1.0.0"  # of race-record and its companions: that of race
