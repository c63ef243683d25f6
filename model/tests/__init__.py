"""The tests of the model, a file for each theme; test_model.py runs them."""
