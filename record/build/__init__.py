"""What make and ninja share: who did what, tasks with what each reads and writes, and the order of them."""
