"""Sounds as rows of raw words, and rows as sounds, block by block as they come."""
