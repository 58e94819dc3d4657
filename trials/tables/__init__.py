"""What trials/run tables carries out: nights by whview sql over tables as people have them."""
