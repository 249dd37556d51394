"""A local page to work in: the script on the left, its picture on the right, and below it the lists at the cursor."""
