"""Tests of view/."""
