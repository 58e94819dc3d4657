"""Machines, scripts and clients that go against one rule each: the trials have to notice all of them."""
