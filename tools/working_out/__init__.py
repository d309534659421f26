"""What the examples of policies must print, worked out without their rules: see tools/worked_examples."""
