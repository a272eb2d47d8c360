"""What is sent: names and values of objects, steps, and datagrams spelled by hand."""
