// The story's storage is not part of the comparison.
