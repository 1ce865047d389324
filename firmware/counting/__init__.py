"""What counts2lcov makes of tables of counts: their reader, the lines of images, coverage."""
