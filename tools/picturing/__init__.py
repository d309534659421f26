"""Pictures of what `opa` has printed: see tools/picture."""
