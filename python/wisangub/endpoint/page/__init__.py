"""A page that shows a sign's lamps: `wisangub-sign --page`, on loopback, for who develops a central system."""
