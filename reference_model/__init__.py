"""The reference model: the rules of the papers worked again, sharing no code with the engine."""
