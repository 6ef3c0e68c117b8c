"""Builds in other orders: a project is built again in copies, and what they leave in another way is a race that is seen."""
