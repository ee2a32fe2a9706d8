import Config

config :kernel,
  distributed: [{:myapp, 5000, [:"a@h", :"b@h"]}]
