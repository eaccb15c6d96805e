"""The command linkwatch: which network interfaces come, go or change, for people. linkwatch(1) has its lines."""
