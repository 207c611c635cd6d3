"""What the page is packed of: its one file, its examples, and the tables that it has of others."""
