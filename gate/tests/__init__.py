"""Tests of the gate, which it runs first. Each one plants a fault that the gate has to find."""
