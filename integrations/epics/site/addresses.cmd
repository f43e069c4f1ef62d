var asCheckClientIP 1
