-- What a command was asked for with, however many there are.
CREATE INDEX batch_commands_of ON batch_commands (command);
