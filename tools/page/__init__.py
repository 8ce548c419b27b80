"""The parts of tools/trace-page and tools/policy-page: what they read, what they reckon, and the one file that they write."""
