// The call, by the model that the file names: the functions stand above, one a model.
int64_t vividlawn_analyse(const uint8_t *model, size_t model_len, uint8_t *output, size_t output_len) {
  (void)model_len, (void)output_len;
  switch (model[0]) {
    case 1: return analyse_Flow(model, output);
    case 2: return analyse_Delay(model, output);
    case 3: return analyse_FaultSet(model, output);
    case 4: return analyse_FirstFault(model, output);
    case 5: return analyse_Pair(model, output);
    case 6: return analyse_FlowOrOut(model, output);
    default: return analyse_DelayOrOut(model, output);
  }
}
