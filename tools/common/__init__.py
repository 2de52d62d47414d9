"""What the scripts share: how they read, how they end, and the maps that lead back to names and rows."""
