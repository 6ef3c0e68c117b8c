"""race-explain: what a fault, a refusal or a kind of race means, out of docs/FAULTS.md."""
