"""What trials/run folder/stops does to nights of whview folder: it kills, hinders and doubles them."""
