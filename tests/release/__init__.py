"""Tests of how programs are found, made, checked and packed."""
