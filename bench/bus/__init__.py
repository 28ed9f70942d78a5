"""Programs in Rattle that threads of one bus are measured and judged by, and how they are built."""
