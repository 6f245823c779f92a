"""An independent simulator of the gateway dispatcher, written from documents 01 and 02 alone."""
