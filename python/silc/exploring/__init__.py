"""What tools/explore is made of: templates of datapaths, runs of silc, tables of trade-offs."""
