"""The parts of ./view: readers of what the programs read and print, stories of it, pictures, the page."""
