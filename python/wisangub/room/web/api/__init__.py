"""JSON for other systems: operations under /api/1/, each with a token, and the OpenAPI document that says them."""
